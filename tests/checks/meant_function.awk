{ print lenght($0) }
