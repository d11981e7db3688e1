// Copies each line of standard input to a file by one write, in one thread.
#define _GNU_SOURCE
#include <fcntl.h>
#include <stdio.h>
#include <stdlib.h>
#include <unistd.h>

int main(int count, char **words) {
  int log = count == 2 ? open(words[1], O_WRONLY | O_CREAT | O_APPEND, 0644) : -1;
  if (log < 0) return 1;
  char *line = NULL;
  size_t room = 0;
  ssize_t length;
  while ((length = getline(&line, &room, stdin)) > 0)
    if (write(log, line, length) != length) return 1;
  return ferror(stdin) != 0;
}
