// A branch of the tree is named by a reference while a key is put in below it.
#include <iostream>
#include <vector>

struct Branch {
  int key;
  int left;
  int right;
};

int put(std::vector<Branch>& tree, int at, int key) {
  if (at == -1) {
    tree.push_back(Branch{key, -1, -1});
    return tree.size() - 1;
  }
  Branch& branch = tree[at];
  if (key < branch.key) {
    int left = put(tree, branch.left, key);
    branch.left = left;
  } else if (key > tree[at].key) {
    int right = put(tree, tree[at].right, key);
    tree[at].right = right;
  }
  return at;
}

int depth(const std::vector<Branch>& tree, int at) {
  if (at == -1) {
    return 0;
  }
  int left = depth(tree, tree[at].left);
  int right = depth(tree, tree[at].right);
  if (left < right) {
    return right + 1;
  }
  return left + 1;
}

void print(const std::vector<Branch>& tree, int at) {
  if (at != -1) {
    print(tree, tree[at].left);
    std::cout << tree[at].key << ' ';
    print(tree, tree[at].right);
  }
}

int main() {
  std::vector<Branch> tree;
  int root = -1;
  std::vector<int> keys = {8, 3, 10, 1, 6, 14, 4, 7, 13, 3};
  for (int key : keys) {
    root = put(tree, root, key);
  }
  print(tree, root);
  std::cout << "in " << depth(tree, root) << " rows" << std::endl;
  return tree.size();
}
