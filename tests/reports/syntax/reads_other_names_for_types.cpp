using number = unsigned long;
using pointer = const number* const*;
using reference = number const&;
using again = ::number;
