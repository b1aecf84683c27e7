constexpr int a /*
*/ # 1 "a.cpp"
= 1;
