# 0 "comments.cpp"
# 0 "<built-in>"
# 0 "<command-line>"
# 1 "comments.cpp"
/* -*- C++ -*- */
# 1 "repeat.h" 1
constexpr int shared = 1;
# 3 "comments.cpp" 2
// The one below is WIDTH wide.
constexpr int other /* its name */ = 2; // two
/* end */
