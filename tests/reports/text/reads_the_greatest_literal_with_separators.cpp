constexpr long a = 9'223'372'036'854'775'807l;
