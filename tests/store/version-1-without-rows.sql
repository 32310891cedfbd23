-- A store of version 1 without rows, as the program of version 1 made it.
BEGIN TRANSACTION;
CREATE TABLE IF NOT EXISTS accepted(seq INTEGER PRIMARY KEY, id TEXT UNIQUE NOT NULL, body BLOB NOT NULL);
COMMIT;
