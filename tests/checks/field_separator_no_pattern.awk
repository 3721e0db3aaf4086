BEGIN { FS = "((" }
{ print }
