module yimakohe.example/pool

go 1.19
