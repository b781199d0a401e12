module hammerecru.example/smplan-pg

go 1.18
