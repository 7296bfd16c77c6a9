"""The vet's desk. It decides nothing about a book: it hands bytes to two proved programs and shows what they print."""
