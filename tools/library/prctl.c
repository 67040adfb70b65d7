/* <sys/prctl.h>: it neither keeps nor gives pointers. */
#include <sys/prctl.h>
int prctl(int option, ...) { return 0; }
