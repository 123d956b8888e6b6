CREATE ROLE "the edge" LOGIN PASSWORD 'a \''b';
CREATE SCHEMA shop;
CREATE TABLE shop."Orders" (id bigint PRIMARY KEY, client text, day date NOT NULL, total numeric);
GRANT USAGE ON SCHEMA shop TO "the edge";
