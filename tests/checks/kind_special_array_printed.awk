BEGIN { print ARGV }
