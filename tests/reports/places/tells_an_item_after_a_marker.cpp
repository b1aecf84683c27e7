int a;
# 40 "other.h" 1
  int b c;
# 2 "a.cpp" 2
