# 1 "a.cpp"
#define N
