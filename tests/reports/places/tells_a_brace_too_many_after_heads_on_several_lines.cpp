namespace a {
namespace b {
}
}
  }
