terraform {
  required_providers { aws = { source = "hashicorp/aws" } }
}
provider "aws" {
  region                      = "us-east-1"
  access_key                  = "test"
  secret_key                  = "test"
  skip_credentials_validation = true
  skip_metadata_api_check     = true
  skip_requesting_account_id  = true
  endpoints { ec2 = "http://127.0.0.1:5999" }
}
variable "ssh_from" { default = "10.0.0.0/8" }
resource "aws_vpc" "shop" {
  cidr_block = "10.0.0.0/16"
}
resource "aws_internet_gateway" "shop" {
  vpc_id = aws_vpc.shop.id
}
resource "aws_subnet" "public" {
  vpc_id            = aws_vpc.shop.id
  cidr_block        = "10.0.1.0/24"
  availability_zone = "us-east-1a"
}
resource "aws_subnet" "private" {
  count             = 2
  vpc_id            = aws_vpc.shop.id
  cidr_block        = cidrsubnet("10.0.0.0/16", 8, 10 + count.index)
  availability_zone = "us-east-1a"
}
resource "aws_route_table" "public" {
  vpc_id = aws_vpc.shop.id
  route {
    cidr_block = "0.0.0.0/0"
    gateway_id = aws_internet_gateway.shop.id
  }
}
resource "aws_route_table_association" "public" {
  subnet_id      = aws_subnet.public.id
  route_table_id = aws_route_table.public.id
}
resource "aws_route_table" "private" {
  vpc_id = aws_vpc.shop.id
  route {
    cidr_block = "10.9.0.0/16"
    network_interface_id = aws_network_interface.fw.id
  }
  route {
    cidr_block = "10.8.0.0/16"
    network_interface_id = aws_network_interface.fw.id
  }
}
resource "aws_security_group" "web" {
  name   = "web"
  vpc_id = aws_vpc.shop.id
  ingress {
    from_port   = 443
    to_port     = 443
    protocol    = "tcp"
    cidr_blocks = ["0.0.0.0/0"]
    ipv6_cidr_blocks = ["::/0"]
  }
  ingress {
    from_port = 22
    to_port   = 22
    protocol  = "tcp"
    security_groups = [aws_security_group.bastion.id]
  }
  ingress {
    from_port = 80
    to_port   = 80
    protocol  = "tcp"
    security_groups = [aws_security_group.bastion.id, aws_security_group.app.id]
    cidr_blocks = [var.ssh_from]
  }
  egress {
    from_port = 0
    to_port   = 0
    protocol  = "-1"
    cidr_blocks = ["0.0.0.0/0"]
  }
}
resource "aws_security_group" "app" {
  name   = "app"
  vpc_id = aws_vpc.shop.id
}
resource "aws_security_group_rule" "app_in" {
  type                     = "ingress"
  security_group_id        = aws_security_group.app.id
  protocol                 = "tcp"
  from_port                = 8080
  to_port                  = 8082
  source_security_group_id = aws_security_group.web.id
}
resource "aws_security_group" "db" {
  name   = "db"
  vpc_id = aws_vpc.shop.id
}
resource "aws_vpc_security_group_ingress_rule" "db" {
  security_group_id            = aws_security_group.db.id
  ip_protocol                  = "tcp"
  from_port                    = 5432
  to_port                      = 5432
  referenced_security_group_id = aws_security_group.app.id
}
resource "aws_vpc_security_group_egress_rule" "db" {
  security_group_id = aws_security_group.db.id
  ip_protocol       = "-1"
  cidr_ipv4         = "0.0.0.0/0"
}
resource "aws_network_acl" "private" {
  vpc_id     = aws_vpc.shop.id
  subnet_ids = aws_subnet.private[*].id
  ingress {
    rule_no    = 100
    action     = "allow"
    protocol   = "-1"
    from_port  = 0
    to_port    = 0
    cidr_block = "10.0.0.0/16"
  }
  ingress {
    rule_no    = 90
    action     = "deny"
    protocol   = "icmp"
    from_port  = 0
    to_port    = 0
    icmp_type  = 8
    icmp_code  = -1
    cidr_block = "10.0.1.0/24"
  }
  egress {
    rule_no    = 100
    action     = "allow"
    protocol   = "tcp"
    from_port  = 0
    to_port    = 65535
    cidr_block = "0.0.0.0/0"
  }
}
resource "aws_network_interface" "web" {
  subnet_id       = aws_subnet.public.id
  private_ips     = ["10.0.1.10"]
  security_groups = [aws_security_group.web.id, aws_security_group.bastion.id]
}
resource "aws_network_interface" "app" {
  subnet_id       = aws_subnet.private[0].id
  private_ips     = ["10.0.10.10", "10.0.10.11"]
  security_groups = [aws_security_group.app.id]
}
resource "aws_network_interface" "db" {
  subnet_id       = aws_subnet.private[1].id
  private_ips     = ["10.0.11.10"]
  security_groups = [aws_security_group.db.id, module.cache.id]
}

resource "aws_security_group" "bastion" {
  name   = "bastion"
  vpc_id = aws_vpc.shop.id
}
module "cache" {
  source = "./mod"
  vpc  = aws_vpc.shop.id
  name = "cache"
  from = aws_security_group.bastion.id
}
resource "aws_network_interface" "fw" {
  subnet_id         = aws_subnet.dmz["a"].id
  private_ips       = ["10.0.20.10"]
  source_dest_check = false
  security_groups   = [aws_security_group.bastion.id]
}
resource "aws_subnet" "dmz" {
  for_each = { a = "10.0.20.0/24", b = "10.0.21.0/24" }
  vpc_id            = aws_vpc.shop.id
  cidr_block        = each.value
  availability_zone = "us-east-1a"
}
resource "aws_route_table" "dmz" {
  vpc_id = aws_vpc.shop.id
}
resource "aws_route" "dmz" {
  route_table_id = aws_route_table.dmz.id
  destination_cidr_block = "0.0.0.0/0"
  gateway_id = aws_internet_gateway.shop.id
}
resource "aws_route_table_association" "dmz" {
  for_each = aws_subnet.dmz
  subnet_id      = each.value.id
  route_table_id = aws_route_table.dmz.id
}
resource "aws_main_route_table_association" "shop" {
  vpc_id = aws_vpc.shop.id
  route_table_id = aws_route_table.private.id
}
resource "aws_network_acl" "dmz" {
  vpc_id = aws_vpc.shop.id
}
resource "aws_network_acl_rule" "dmz" {
  network_acl_id = aws_network_acl.dmz.id
  rule_number = 100
  egress = false
  protocol = "tcp"
  rule_action = "allow"
  cidr_block = "0.0.0.0/0"
  from_port = 22
  to_port = 22
}
resource "aws_network_acl_association" "dmz" {
  network_acl_id = aws_network_acl.dmz.id
  subnet_id = aws_subnet.dmz["b"].id
}
resource "aws_default_security_group" "shop" {
  vpc_id = aws_vpc.shop.id
}
resource "aws_default_network_acl" "shop" {
  default_network_acl_id = aws_vpc.shop.default_network_acl_id
  ingress {
    rule_no = 100
    action = "allow"
    protocol = "tcp"
    from_port = 443
    to_port = 443
    cidr_block = "0.0.0.0/0"
  }
  lifecycle { ignore_changes = [subnet_ids] }
}
resource "aws_network_interface_sg_attachment" "app" {
  security_group_id    = module.cache.id
  network_interface_id = aws_network_interface.app.id
}
