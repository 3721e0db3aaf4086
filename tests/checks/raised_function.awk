{ length++ }
