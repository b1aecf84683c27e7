constexpr int a = /;
