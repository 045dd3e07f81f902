"""The desk's front: it builds and runs the proved programs, keeps files safe, and says in words what they answered."""

VERSION = '1.3'
