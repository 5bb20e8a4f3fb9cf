// The node behind which a value belongs is named by a pointer, and the vector grows before that is set.
#include <iostream>
#include <vector>

struct Node {
  int value;
  int next;
};

// The number of the node behind which a value belongs, and -1 where it belongs first.
int before(const std::vector<Node>& nodes, int head, int value) {
  int found = -1;
  int at = head;
  while (at != -1 && nodes[at].value < value) {
    found = at;
    at = nodes[at].next;
  }
  return found;
}

int main() {
  std::vector<Node> nodes;
  int head = -1;
  std::vector<int> values = {5, 3, 9, 7, 1};
  for (int value : values) {
    int where = before(nodes, head, value);
    int index = nodes.size();
    Node* last = nullptr;
    if (where != -1) {
      last = &nodes[where];
    }
    nodes.push_back(Node{value, -1});
    if (last == nullptr) {
      nodes[index].next = head;
      head = index;
    } else {
      nodes[index].next = last->next;
      last->next = index;
    }
  }
  int sum = 0;
  int at = head;
  while (at != -1) {
    const Node& node = nodes[at];
    std::cout << node.value << ' ';
    sum += node.value;
    at = node.next;
  }
  std::cout << std::endl;
  return sum;
}
