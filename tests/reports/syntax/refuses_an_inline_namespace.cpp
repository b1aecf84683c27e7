int a; inline namespace b { }
