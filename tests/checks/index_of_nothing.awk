{ print index($0, "") }
