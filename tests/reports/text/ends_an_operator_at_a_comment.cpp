constexpr int a = 4 //**/ 2
/ 2;
