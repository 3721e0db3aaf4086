{ while (getline) }
