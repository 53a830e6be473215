terraform {
  required_providers { aws = { source = "hashicorp/aws" } }
}
provider "aws" {
  region                      = "us-east-1"
  access_key                  = "test"
  secret_key                  = "test"
  skip_credentials_validation = true
  skip_metadata_api_check     = true
  skip_requesting_account_id  = true
  endpoints { ec2 = "http://127.0.0.1:5999" }
}
variable "ssh_from" { default = "10.0.0.0/8" }
resource "aws_vpc" "shop" {
  cidr_block = "10.0.0.0/16"
}
resource "aws_internet_gateway" "shop" {
  vpc_id = aws_vpc.shop.id
}
resource "aws_subnet" "public" {
  vpc_id            = aws_vpc.shop.id
  cidr_block        = "10.0.1.0/24"
  availability_zone = "us-east-1a"
}
resource "aws_subnet" "private" {
  count             = 2
  vpc_id            = aws_vpc.shop.id
  cidr_block        = cidrsubnet("10.0.0.0/16", 8, 10 + count.index)
  availability_zone = "us-east-1a"
}
resource "aws_route_table" "public" {
  vpc_id = aws_vpc.shop.id
  route {
    cidr_block = "0.0.0.0/0"
    gateway_id = aws_internet_gateway.shop.id
  }
}
resource "aws_route_table_association" "public" {
  subnet_id      = aws_subnet.public.id
  route_table_id = aws_route_table.public.id
}
resource "aws_route_table" "private" {
  vpc_id = aws_vpc.shop.id
  route {
    cidr_block = "10.9.0.0/16"
    network_interface_id = aws_network_interface.fw.id
  }
  route {
    cidr_block = "10.7.0.0/16"
    network_interface_id = aws_network_interface.fw.id
  }
}
resource "aws_security_group" "web" {
  name   = "web"
  vpc_id = aws_vpc.shop.id
  ingress {
    from_port   = 443
    to_port     = 443
    protocol    = "tcp"
    cidr_blocks = ["0.0.0.0/0"]
    ipv6_cidr_blocks = ["::/0"]
  }
  ingress {
    from_port = 22
    to_port   = 22
    protocol  = "tcp"
    security_groups = [aws_security_group.bastion.id]
  }
  ingress {
    from_port = 80
    to_port   = 80
    protocol  = "tcp"
    security_groups = [aws_security_group.bastion.id, aws_security_group.app.id]
    cidr_blocks = [var.ssh_from]
  }
  egress {
    from_port = 0
    to_port   = 0
    protocol  = "-1"
    cidr_blocks = ["0.0.0.0/0"]
  }
}
resource "aws_security_group" "app" {
  name   = "application"
  lifecycle { create_before_destroy = true }
  vpc_id = aws_vpc.shop.id
}
resource "aws_vpc_security_group_ingress_rule" "app_in" {
  security_group_id            = aws_security_group.app.id
  ip_protocol                  = "tcp"
  from_port                    = 8080
  to_port                      = 8082
  referenced_security_group_id = aws_security_group.web.id
}
resource "aws_security_group" "db" {
  name   = "db"
  vpc_id = aws_vpc.shop.id
}
resource "aws_vpc_security_group_ingress_rule" "db" {
  security_group_id            = aws_security_group.db.id
  ip_protocol                  = "tcp"
  from_port                    = 5432
  to_port                      = 5433
  referenced_security_group_id = aws_security_group.app.id
}
resource "aws_vpc_security_group_egress_rule" "db" {
  security_group_id = aws_security_group.db.id
  ip_protocol       = "-1"
  cidr_ipv4         = "10.0.0.0/8"
}
resource "aws_network_acl" "private" {
  vpc_id     = aws_vpc.shop.id
  subnet_ids = [aws_subnet.private[0].id]
  ingress {
    rule_no    = 100
    action     = "allow"
    protocol   = "-1"
    from_port  = 0
    to_port    = 0
    cidr_block = "10.0.0.0/16"
  }
  ingress {
    rule_no    = 90
    action     = "deny"
    protocol   = "icmp"
    from_port  = 0
    to_port    = 0
    icmp_type  = 8
    icmp_code  = 0
    cidr_block = "10.0.1.0/24"
  }
  egress {
    rule_no    = 110
    action     = "allow"
    protocol   = "tcp"
    from_port  = 1024
    to_port    = 65535
    cidr_block = "0.0.0.0/0"
  }
}
resource "aws_network_interface" "web" {
  subnet_id       = aws_subnet.public.id
  private_ips     = ["10.0.1.10"]
  security_groups = [aws_security_group.web.id]
}
resource "aws_network_interface" "app" {
  subnet_id       = aws_subnet.private[0].id
  private_ips     = ["10.0.10.10", "10.0.10.12", "10.0.10.13"]
  security_groups = [aws_security_group.app.id]
}
resource "aws_network_interface" "db" {
  subnet_id       = aws_subnet.private[1].id
  private_ips     = ["10.0.11.10"]
  security_groups = [aws_security_group.db.id]
}

resource "aws_security_group" "bastion" {
  name   = "bastion"
  vpc_id = aws_vpc.shop.id
}
resource "aws_network_interface" "fw" {
  subnet_id         = aws_subnet.dmz["a"].id
  private_ips       = ["10.0.20.10"]
  source_dest_check = false
  security_groups   = [aws_security_group.bastion.id]
}
resource "aws_subnet" "dmz" {
  for_each = { a = "10.0.20.0/24", c = "10.0.22.0/24" }
  vpc_id            = aws_vpc.shop.id
  cidr_block        = each.value
  availability_zone = "us-east-1a"
}
resource "aws_route_table" "dmz" {
  vpc_id = aws_vpc.shop.id
}
resource "aws_route" "dmz" {
  route_table_id = aws_route_table.dmz.id
  destination_cidr_block = "0.0.0.0/0"
  network_interface_id = aws_network_interface.fw.id
}
resource "aws_route_table_association" "dmz" {
  for_each = aws_subnet.dmz
  subnet_id      = each.value.id
  route_table_id = aws_route_table.dmz.id
}
resource "aws_network_acl" "dmz" {
  vpc_id = aws_vpc.shop.id
}
resource "aws_network_acl_rule" "dmz" {
  network_acl_id = aws_network_acl.dmz.id
  rule_number = 130
  egress = false
  protocol = "tcp"
  rule_action = "allow"
  cidr_block = "0.0.0.0/0"
  from_port = 22
  to_port = 22
}
resource "aws_default_security_group" "shop" {
  vpc_id = aws_vpc.shop.id
  ingress {
    from_port = 8
    to_port = 0
    protocol = "icmp"
    cidr_blocks = ["10.0.0.0/16"]
    description = "ping"
  }
}
resource "aws_default_network_acl" "shop" {
  default_network_acl_id = aws_vpc.shop.default_network_acl_id
  ingress {
    rule_no = 100
    action = "allow"
    protocol = "tcp"
    from_port = 443
    to_port = 443
    cidr_block = "0.0.0.0/0"
  }
  lifecycle { ignore_changes = [subnet_ids] }
}

resource "aws_vpc" "new" { cidr_block = "10.5.0.0/16" }
resource "aws_subnet" "new" {
  count = 2
  vpc_id = aws_vpc.new.id
  cidr_block = cidrsubnet(aws_vpc.new.cidr_block, 8, count.index)
  availability_zone = "us-east-1b"
}
resource "aws_network_interface" "new" {
  count = 2
  subnet_id = aws_subnet.new[count.index].id
  private_ips = [cidrhost(aws_subnet.new[count.index].cidr_block, 10)]
}
resource "aws_network_interface" "new2" {
  subnet_id = element(aws_subnet.new[*].id, 1)
  private_ips = ["10.5.1.20"]
  security_groups = [aws_security_group.new.id]
}
resource "aws_security_group" "new" {
  vpc_id = aws_vpc.new.id
  name_prefix = "new"
  ingress {
    protocol = "udp"
    from_port = 53
    to_port = 53
    cidr_blocks = ["10.5.0.0/16", "10.0.0.0/16"]
    self = true
  }
}
resource "aws_default_route_table" "new" {
  default_route_table_id = aws_vpc.new.default_route_table_id
  route {
    cidr_block = "10.0.0.0/16"
    network_interface_id = aws_network_interface.new[1].id
  }
}
resource "aws_default_network_acl" "new" {
  default_network_acl_id = aws_vpc.new.default_network_acl_id
  egress {
    rule_no = 100
    action = "allow"
    protocol = "-1"
    from_port = 0
    to_port = 0
    cidr_block = "0.0.0.0/0"
  }
  lifecycle { ignore_changes = [subnet_ids] }
}
resource "aws_network_acl" "new" {
  vpc_id = aws_vpc.new.id
  subnet_ids = aws_subnet.new[*].id
}

module "queue" {
  for_each = { x = aws_vpc.new.id }
  source = "./mod"
  vpc  = each.value
  name = "queue-${each.key}"
  from = aws_security_group.new.id
}
resource "aws_security_group" "worker" {
  for_each = toset(["a", "b"])
  name = "worker-${each.key}"
  vpc_id = aws_vpc.new.id
}
resource "aws_security_group_rule" "worker" {
  for_each = aws_security_group.worker
  type = "egress"
  protocol = -1
  from_port = 0
  to_port = 0
  security_group_id = each.value.id
  cidr_blocks = ["10.5.0.0/16", "10.0.0.0/16"]
}
resource "aws_security_group_rule" "worker2" {
  for_each = toset(["a", "b"])
  type = "ingress"
  protocol = "tcp"
  from_port = 80
  to_port = 80
  security_group_id = aws_security_group.worker[each.key].id
  source_security_group_id = module.queue["x"].id
}
resource "aws_network_interface" "worker" {
  for_each = { a = 30, b = 31 }
  subnet_id = aws_subnet.new[0].id
  private_ips = ["10.5.0.${each.value}"]
  security_groups = [aws_security_group.worker[each.key].id, module.queue["x"].id]
}
