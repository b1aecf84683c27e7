constexpr int a٣ = 1;
