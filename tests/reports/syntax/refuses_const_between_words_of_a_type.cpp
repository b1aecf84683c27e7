unsigned int const a = 1; unsigned const int b = 1;
