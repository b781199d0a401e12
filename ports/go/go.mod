module hammerecru.example/smplan

go 1.18
