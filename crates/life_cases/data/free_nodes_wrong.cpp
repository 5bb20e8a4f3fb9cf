// A list by indices that looks at a node before it takes another: taking one may move them all.
#include <iostream>
#include <vector>

struct Node {
  int value;
  int next;
};

struct Chain {
  std::vector<Node> nodes;
  int head;
  int free;
};

int taken(Chain& chain, int value) {
  if (chain.free == -1) {
    chain.nodes.push_back(Node{value, -1});
    return chain.nodes.size() - 1;
  }
  int at = chain.free;
  chain.free = chain.nodes[at].next;
  chain.nodes[at] = Node{value, -1};
  return at;
}

void push_front(Chain& chain, int value) {
  int at = taken(chain, value);
  chain.nodes[at].next = chain.head;
  chain.head = at;
}

int pop_front(Chain& chain) {
  int at = chain.head;
  Node& node = chain.nodes[at];
  chain.head = node.next;
  node.next = chain.free;
  chain.free = at;
  return node.value;
}

void insert_after(Chain& chain, int at, int value) {
  Node& before = chain.nodes[at];
  int index = taken(chain, value);
  chain.nodes[index].next = before.next;
  before.next = index;
}

int main() {
  Chain chain;
  chain.head = -1;
  chain.free = -1;
  for (int i = 1; i <= 4; ++i) {
    push_front(chain, i * i);
  }
  int sum = pop_front(chain) + pop_front(chain);
  insert_after(chain, chain.head, 7);
  insert_after(chain, chain.head, 5);
  insert_after(chain, chain.head, 3);
  for (int at = chain.head; at != -1; at = chain.nodes[at].next) {
    std::cout << at << ':' << chain.nodes[at].value << ' ';
  }
  std::cout << std::endl;
  return 10 * sum + chain.nodes.size();
}
