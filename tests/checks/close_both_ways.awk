{ close("sort", "to") }
