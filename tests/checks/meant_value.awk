$2 > FUNCTION { count += subset; pritn }
END { if (count > Count) print cuont, lenght; else sbustr ("a"); exti }
end { print Fnr }
