#include <stdio.h>
#include <stdlib.h>
extern int *swap();
extern void note();
_Thread_local int here;
struct node { struct node *left, *right; int key; char more[0]; };
struct node *insert(tree, key)
     struct node *tree;
     int key;
{
  if (tree == NULL) {
    tree = (struct node *) calloc(1, sizeof(struct node));
    tree->key = key;
    return tree;
  }
  if (key < tree->key)
    tree->left = insert(tree->left, key);
  else
    tree->right = insert(tree->right, key);
  return tree;
}
int main(argc, argv)
     int argc;
     char **argv;
{
  struct node *root = NULL;
  int other = 4, *pointer = &here;
  root = insert(root, 3);
  insert(root, 1);
  insert(root, 5);
  pointer = swap(&pointer, &other);
  note(pointer);
  return root->left->key - 1;
}
