// A reader that holds the node on the left while it reads the right side: each node that it makes may move the others.
#include <iostream>
#include <string_view>
#include <vector>

struct Node {
  char sign;
  int left;
  int right;
  int size;
};

int read_sum(std::vector<Node>& nodes, std::string_view text, int& at);

int added(std::vector<Node>& nodes, Node node) {
  nodes.push_back(node);
  return nodes.size() - 1;
}

int read_part(std::vector<Node>& nodes, std::string_view text, int& at) {
  if (text[at] == '(') {
    ++at;
    int inner = read_sum(nodes, text, at);
    ++at;
    return inner;
  }
  int digit = text[at] - '0';
  ++at;
  return added(nodes, Node{'=', digit, 0, 1});
}

int read_product(std::vector<Node>& nodes, std::string_view text, int& at) {
  int left = read_part(nodes, text, at);
  while (at < text.size() && text[at] == '*') {
    ++at;
    int right = read_part(nodes, text, at);
    left = added(nodes, Node{'*', left, right, nodes[left].size + nodes[right].size + 1});
  }
  return left;
}

int read_sum(std::vector<Node>& nodes, std::string_view text, int& at) {
  int left = read_product(nodes, text, at);
  while (at < text.size() && text[at] == '+') {
    ++at;
    const Node& first = nodes[left];
    int right = read_product(nodes, text, at);
    int size = first.size + nodes[right].size + 1;
    left = added(nodes, Node{'+', left, right, size});
  }
  return left;
}

int value(const std::vector<Node>& nodes, int at) {
  const Node& node = nodes[at];
  if (node.sign == '+') {
    return value(nodes, node.left) + value(nodes, node.right);
  }
  if (node.sign == '*') {
    return value(nodes, node.left) * value(nodes, node.right);
  }
  return node.left;
}

int main() {
  std::vector<Node> nodes;
  int at = 0;
  int root = read_sum(nodes, "2+3*(4+1)*2", at);
  std::cout << nodes[root].size << " nodes of " << at << " characters" << std::endl;
  return value(nodes, root);
}
