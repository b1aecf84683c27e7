/* -*- C++ -*- */
constexpr int shared = 1;
// The one below is WIDTH wide.
constexpr int other /* its name */ = 2; // two
/* end */
