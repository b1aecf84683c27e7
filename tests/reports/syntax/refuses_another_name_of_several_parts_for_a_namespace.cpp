namespace a { } namespace b::c = a;
