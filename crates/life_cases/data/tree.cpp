// A search tree whose branches lie in a vector: a helper puts a key in, and calls itself on the branch below.
#include <iostream>
#include <vector>

struct Branch {
  int key;
  int left;
  int right;
};

int put(std::vector<Branch>& tree, int at, int key) {
  if (at == -1) {
    tree.push_back(Branch{key, -1, -1});
    return tree.size() - 1;
  }
  if (key < tree[at].key) {
    int left = put(tree, tree[at].left, key);
    tree[at].left = left;
  } else if (key > tree[at].key) {
    int right = put(tree, tree[at].right, key);
    tree[at].right = right;
  }
  return at;
}

int depth(const std::vector<Branch>& tree, int at) {
  if (at == -1) {
    return 0;
  }
  int left = depth(tree, tree[at].left);
  int right = depth(tree, tree[at].right);
  if (left < right) {
    return right + 1;
  }
  return left + 1;
}

void print(const std::vector<Branch>& tree, int at) {
  if (at != -1) {
    const Branch& branch = tree[at];
    print(tree, branch.left);
    std::cout << branch.key << ' ';
    print(tree, branch.right);
  }
}

int main() {
  std::vector<Branch> tree;
  int root = -1;
  std::vector<int> keys = {8, 3, 10, 1, 6, 14, 4, 7, 13, 3};
  for (int key : keys) {
    root = put(tree, root, key);
  }
  print(tree, root);
  std::cout << "in " << depth(tree, root) << " rows" << std::endl;
  return tree.size();
}
