int vector;
int b = vector < 1; int c = std::vector < 1;
