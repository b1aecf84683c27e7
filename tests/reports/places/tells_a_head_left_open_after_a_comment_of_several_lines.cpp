namespace a { /* }
} */ 