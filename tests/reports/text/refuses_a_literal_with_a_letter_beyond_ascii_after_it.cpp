constexpr int a = 1é;
