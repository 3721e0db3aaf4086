BEGIN { "date" |& getline x; print x }
