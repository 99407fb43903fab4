module listset.example/judge

go 1.18
