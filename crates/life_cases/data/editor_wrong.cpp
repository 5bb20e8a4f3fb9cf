// An editor whose line is still held when another was put in: the lines may have been moved to have room for it.
#include <iostream>
#include <string>
#include <vector>

struct Editor {
  std::vector<std::string> lines;
  std::size_t at;
};

std::string& current([[life::keeps]] Editor& editor) {
  return editor.lines[editor.at];
}

void insert(Editor& editor, std::string text) {
  editor.lines.push_back(std::move(text));
  editor.at = editor.lines.size() - 1;
}

void up([[life::keeps]] Editor& editor) {
  if (editor.at > 0) {
    --editor.at;
  }
}

int main() {
  Editor editor;
  insert(editor, "one");
  insert(editor, "two");
  up(editor);
  std::string& line = current(editor);
  up(editor);
  line += '!';
  insert(editor, line);
  line += '?';
  std::size_t sum = 0;
  for (const auto& each : editor.lines) {
    std::cout << each << std::endl;
    sum += each.size();
  }
  return 10 * editor.at + sum;
}
