const int const a = 1;
