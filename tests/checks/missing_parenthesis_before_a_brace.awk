{ print toupper(substr($1,1,1) substr($1,2) }
