#include <stdio.h>
#include "shape.h"
double total(struct shape *shape)
{
  double sum = 0.0;
  for (; shape; shape = shape->next)
    sum += shape->area(shape);
  return sum;
}
int main(void)
{
  static struct square square;
  static struct circle circle;
  square_init(&square, 2.5e0);
  circle_init(&circle, &square);
  circle.shape.next = (struct shape *) &square;
  printf("%g\n", total(&circle.shape));
  return squares != 2;
}
