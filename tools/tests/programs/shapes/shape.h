struct shape { double (*area)(struct shape *); struct shape *next; };
struct square { struct shape shape; double side; int *counter; };
struct circle { struct shape shape; double radius; struct square *around; };
extern int squares;
void square_init(struct square *square, double side);
void circle_init(struct circle *circle, struct square *around);
double total(struct shape *shape);
