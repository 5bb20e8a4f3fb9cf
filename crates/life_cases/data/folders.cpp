// Folders lie in a vector and name the folder above them: two helpers call each other, so one is declared first.
#include <iostream>
#include <string>
#include <vector>

struct Folder {
  std::string name;
  int above;
  int files;
};

int files_in(const std::vector<Folder>& folders, int at);

int files_below(const std::vector<Folder>& folders, int above) {
  int sum = 0;
  for (std::size_t at = 0; at < folders.size(); ++at) {
    if (folders[at].above == above) {
      sum += files_in(folders, at);
    }
  }
  return sum;
}

int files_in(const std::vector<Folder>& folders, int at) {
  return folders[at].files + files_below(folders, at);
}

std::string path(const std::vector<Folder>& folders, int at) {
  const Folder& folder = folders[at];
  if (folder.above == -1) {
    return folder.name;
  }
  return path(folders, folder.above) + '/' + folder.name;
}

int made(std::vector<Folder>& folders, std::string name, int above, int files) {
  Folder folder;
  folder.name = std::move(name);
  folder.above = above;
  folder.files = files;
  folders.push_back(folder);
  return folders.size() - 1;
}

int main() {
  std::vector<Folder> folders;
  int home = made(folders, "home", -1, 1);
  int work = made(folders, "work", home, 4);
  int drafts = made(folders, "drafts", work, 7);
  made(folders, "music", home, 20);
  std::string where = path(folders, drafts);
  std::cout << where << ' ' << files_in(folders, work) << std::endl;
  folders[work].name = "desk";
  std::cout << path(folders, drafts) << ", was " << where << std::endl;
  return files_in(folders, home);
}
