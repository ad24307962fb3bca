CREATE TABLE source_rows (tab TEXT, id INTEGER, body TEXT, PRIMARY KEY (tab, id));
INSERT INTO source_rows VALUES ('users', 1, '{"id":1,"name":"Zoë","updated_at":"2024-05-01T10:00:00Z"}');
INSERT INTO source_rows VALUES ('users', 2, '{"id":2,"name":"李雷","updated_at":"2024-05-01T09:00:00Z"}');
INSERT INTO source_rows VALUES ('users', 3, '{"id":3,"name":"Ann","updated_at":null}');
