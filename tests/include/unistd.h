#pragma once
#define STDOUT_FILENO 1
int isatty(int);
