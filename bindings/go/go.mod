module github.com/rtfilter/rtfilter/bindings/go

go 1.19
