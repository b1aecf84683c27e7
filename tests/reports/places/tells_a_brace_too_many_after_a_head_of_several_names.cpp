namespace a::b {
}
}
