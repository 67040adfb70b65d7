#include "list.h"
struct link head = { &head, &head };
void add(struct item *item)
{
  struct link *last = head.previous;
  item->link.next = &head;
  item->link.previous = last;
  last->next = &item->link;
  head.previous = &item->link;
}
struct item *find(int number)
{
  for (struct link *link = head.next; link != &head; link = link->next) {
    struct item *item = ITEM(link);
    if (item->number == number)
      return item;
  }
  return NULL;
}
