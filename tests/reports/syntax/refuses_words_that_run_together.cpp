constexprint a = 1;
