/* the first field */
{ print $1 }
