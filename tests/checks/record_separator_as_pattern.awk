BEGIN { RS = "[0-9]+" }
{ print }
