terraform {
  required_providers { aws = { source = "hashicorp/aws" } }
}
provider "aws" {
  region                      = "us-east-1"
  access_key                  = "test"
  secret_key                  = "test"
  skip_credentials_validation = true
  skip_metadata_api_check     = true
  skip_requesting_account_id  = true
  endpoints { ec2 = "http://127.0.0.1:5999" }
}
resource "aws_vpc" "shop" {
  cidr_block = "10.0.0.0/16"
}
resource "aws_subnet" "a" {
  vpc_id            = aws_vpc.shop.id
  cidr_block        = "10.0.1.0/24"
  availability_zone = "us-east-1a"
}
resource "aws_subnet" "b" {
  vpc_id            = aws_vpc.shop.id
  cidr_block        = "10.0.2.0/24"
  availability_zone = "us-east-1b"
}
resource "aws_security_group" "web" {
  name   = "web"
  vpc_id = aws_vpc.shop.id
}
resource "aws_vpn_gateway" "office" {
  vpc_id = aws_vpc.shop.id
}
resource "aws_vpn_gateway" "idle" {}
resource "aws_route_table" "a" {
  vpc_id = aws_vpc.shop.id
  route {
    cidr_block = "172.20.0.0/16"
    gateway_id = aws_vpn_gateway.office.id
  }
}
resource "aws_route_table" "b" {
  vpc_id = aws_vpc.shop.id
}
resource "aws_route_table_association" "a" {
  subnet_id      = aws_subnet.a.id
  route_table_id = aws_route_table.a.id
}
resource "aws_internet_gateway" "shop" {
  vpc_id = aws_vpc.shop.id
}
resource "aws_vpc" "depot" {
  cidr_block = "10.1.0.0/16"
}
resource "aws_vpn_gateway_attachment" "idle" {
  vpc_id         = aws_vpc.depot.id
  vpn_gateway_id = aws_vpn_gateway.idle.id
}
resource "aws_route_table" "depot" {
  vpc_id = aws_vpc.depot.id
}
resource "aws_route" "depot" {
  route_table_id         = aws_route_table.depot.id
  destination_cidr_block = "172.20.0.0/14"
  gateway_id             = aws_vpn_gateway_attachment.idle.vpn_gateway_id
}
resource "aws_vpc" "yard" {
  cidr_block = "10.2.0.0/16"
}
resource "aws_vpn_gateway" "yard" {
  vpc_id = aws_vpc.yard.id
}
resource "aws_route_table" "yard" {
  vpc_id = aws_vpc.yard.id
  route {
    cidr_block = "172.24.0.0/16"
    gateway_id = aws_vpn_gateway.yard.id
  }
}
resource "aws_route_table" "edge" {
  vpc_id = aws_vpc.shop.id
}
resource "aws_route_table_association" "edge" {
  gateway_id     = aws_internet_gateway.shop.id
  route_table_id = aws_route_table.edge.id
}
resource "aws_vpc_endpoint" "dynamodb" {
  vpc_id          = aws_vpc.shop.id
  service_name    = "com.amazonaws.us-east-1.dynamodb"
  route_table_ids = [aws_route_table.a.id, aws_route_table.b.id]
}
resource "aws_vpc_endpoint" "depot" {
  vpc_id          = aws_vpc.depot.id
  service_name    = "com.amazonaws.us-east-1.s3"
  route_table_ids = [aws_route_table.depot.id]
}
resource "aws_vpc_endpoint" "yard" {
  vpc_id          = aws_vpc.yard.id
  service_name    = "com.amazonaws.us-east-1.s3"
  route_table_ids = [aws_route_table.yard.id]
}
